"""Random runs of the program: what the cases of all forms have in common, and the forms `nested` and `harts`."""

ORDERS = {"4k": 1 << 12, "2m": 1 << 21, "1g": 1 << 30}
WIDTHS = [0, 1, 2, 4, 6, 8, 12, 16, 32, 64]
PERMISSIONS = ["rwxu"] * 7 + ["r--u", "rw-u", "--xu", "r-xu", "rw--", "r---"]
PIECES = [b"\n", b"\r", b"\r\n", b"\t", b" ", b"#", b"\0", b"\xff", b",", b'"', b"[", b"]", b"=", b"==", b"SB ", b"--",
          b" L ", b"I  ", b"ffffffffffffffff", b",65536", b",65537", b"0", b" " * 256, b"\xef\xbb\xbf"]
WORDS = ["map", "unmap", "protect", "move", "space", "fence", "demand", "run", "rest", "all", "addr", "page", "#", "0x",
         "4k", "2m", "1g", "rwxu", "-w-u", "0", "01", "1048577", "ffffffffffffffff", "10000000000000000"]
FORM_WORDS = WORDS + ["guest", "gmap", "gunmap", "vmap", "vunmap", "harts", "hart", "take", "rwx-", "65535", "65536",
                      "9", "20000000", "1fffffff", "4194305", "16385", "2049"]
ENDS = ["\n"] * 20 + ["\r\n", " # what\n", "\n\n", "\t\n", "\n # what\n"]
NEGATIVE = (1 << 64) - (1 << 38)


class Drawn:
    """One random run: its files and its words."""

    form = []
    files_of = ("script", "trace")
    flags = ("answers",)
    script_words = FORM_WORDS
    spread = 2  # an access is to one of the pages, or so many behind it
    lengths = [0, 3, 50, 400]  # of traces

    def __init__(self, rng, without=()):
        self.rng = rng
        self.without = without
        self.pages = [0]

    def likely(self, chance):
        return self.rng.random() < chance

    # scripts

    def aligned(self, address, order):
        """The block of this order that holds an address; now and then the address as it is."""
        return address - address % ORDERS[order] if self.likely(0.97) else address

    def written(self, lines):
        """The text of a script: now and then with a word of a line exchanged."""
        if lines and self.likely(0.1):
            at = self.rng.randrange(len(lines))
            words = lines[at].split() + [""]
            words[self.rng.randrange(len(words))] = self.rng.choice(self.script_words)
            lines[at] = " ".join(words)
        return "".join(line + self.rng.choice(ENDS) for line in lines).encode()

    # traces

    def record(self):
        at = (self.rng.choice(self.pages) * 4096 + self.rng.choice([0, 0, 8, 4094]) + self.rng.randrange(self.spread) * 4096)
        address = f"{at % (1 << 64):{self.rng.choice(['x', '08x', '016x', 'X'])}}"[-16:]
        size = self.rng.choice(["1", "4", "8", "0", "4096", "0065", "9000"])
        forms = ["I  {},{}", " L {},{}", " S {},{}", " M {},{}"] * 3 + ["\tL\t {},{} ", "I {},{} # a"]
        return self.rng.choice(forms).format(address, size)

    def trace(self):
        lines = [self.record() for _ in range(self.rng.choice(self.lengths))]
        if self.likely(0.3):
            lines.insert(self.rng.randint(0, len(lines)),
                         self.rng.choice(["==1== x", "--", "** x", "SB 0", "#", "", " \t", "=" * 70000, "\r"]))
        text = "\n".join(lines) + self.rng.choice(["\n", "", "\r\n", "\r"])
        return text.encode()

    # runs

    def damaged(self, text):
        """Some bytes of a text are cut out, doubled or replaced."""
        for _ in range(self.rng.randint(1, 3)):
            at = self.rng.randint(0, len(text))
            gone = self.rng.choice([0, 0, 1, 2, 30])
            text = text[:at] + self.rng.choice(PIECES + [text[at:at + 20]]) + text[at + gone:]
        return text

    def files(self):
        files = {name: getattr(self, name)() for name in self.files_of}
        name = self.rng.choice(list(files))
        # TOML 1.0 and 1.1 differ in newlines within braces, so texts with braces are not damaged
        if self.likely(0.15) and b"{" not in files[name]:
            files[name] = self.damaged(files[name])
        return files

    def groups(self, folder):
        """The words, those of an option together; now and then a file is not named."""
        named = [[f"--{name}", f"{folder}/{name}"] for name in self.files_of if self.likely(0.98)]
        return named + [["--" + word] for word in self.flags if word not in self.without and self.likely(0.3)]

    def words(self, folder):
        groups = self.groups(folder)
        if self.likely(0.03):
            groups.append(self.rng.choice([["--help"], ["--answers"], ["x"], ["--trace"], ["--config=x"], ["-"], [""]]))
        self.rng.shuffle(groups)
        return self.form + sum(groups, [])


def headed(rng, head, lines):
    """A script with its head in front; now and then it is left out, stands twice, or stands lower."""
    places = rng.choice([[0]] * 40 + [[], [0, rng.randint(0, len(lines))], [rng.randint(0, len(lines))]])
    for place in sorted(places, reverse=True):
        lines.insert(place, head)
    return [rng.choice(["# what", "", " \t"])] * rng.choice([0, 0, 0, 2]) + lines


class Nested(Drawn):
    """A guest over a host: the guest's pages, and the pages of its nodes and its data in the host."""

    form = ["nested"]

    def __init__(self, rng, without=()):
        super().__init__(rng, without)
        self.nodes = rng.choice([1, 3, 4, 8, 20, 20, 100, 16384])
        self.base = rng.choice([0, 1, 510, 0x100, 0x100, (1 << 27) - 2, (1 << 29) - self.nodes])
        origins = [0, 0, 508, (1 << 18) - 4, NEGATIVE >> 12] + [(1 << 26) - 4] * rng.choice([0, 1])
        self.pages = [rng.choice(origins) + rng.randrange(8) for _ in range(rng.choice([2, 6]))]
        origins = [0, 0, 0x200, 1 << 18, (1 << 27) - 4, (1 << 29) - 4]
        self.guest = [rng.choice(origins) + rng.randrange(4) for _ in range(4)]
        self.guest += [self.base + rng.randrange(min(self.nodes, 5)) for _ in range(4)]
        self.mapped = {"gmap": [], "vmap": []}

    def head(self):
        pick = self.rng.choice
        base = self.base if self.likely(0.98) else (1 << 29) + 1 - self.nodes
        frames, g_nodes = pick([1, 20, 600, 300000, 1048576, 4194304]), 4 + pick([0, 6, 20, 20, 60, 16380])
        return f"guest {pick(['', '', '0x'])}{base:x} {self.nodes} {frames} {g_nodes} {pick(WIDTHS)}"

    def order(self):
        return self.rng.choice(["4k"] * 8 + ["2m"] * 3 + ["1g"])

    def address(self, pages, order):
        address = self.rng.choice(pages) * 4096 + self.rng.choice([0, 0, 1, 2]) * ORDERS[order]
        return f"{'0x' if self.likely(0.1) else ''}{self.aligned(address, order) % (1 << 64):x}"

    def count(self):
        return self.rng.choice([""] * 4 + [f" {self.rng.randint(1, 20)}"])

    def map_line(self, verb, pages):
        order = self.order()
        address = self.address(pages, order)
        self.mapped[verb].append((address, order))
        other = ""
        if verb == "vmap":
            there = [at for at, of in self.mapped["gmap"] if of == order]
            other = f" {self.rng.choice(there) if there and self.likely(0.7) else self.address(self.guest, order)}"
        user = [perm for perm in PERMISSIONS if perm[3] == "u" or verb == "vmap" or self.likely(0.02)]
        return f"{verb} {address} {order}{other} {self.rng.choice(user)}{self.count()}"

    def unmap_line(self, verb, pages):
        order = self.order()
        address = self.address(pages, order)
        mapped = self.mapped[verb.replace("unmap", "map")]
        if mapped and self.likely(0.8):
            address, order = self.rng.choice(mapped)
        return f"{verb} {address} {order}{self.count()}"

    def line(self):
        verb = self.rng.choice(["gmap"] * 4 + ["vmap"] * 5 + ["gunmap", "vunmap", "run", "run"])
        pages = self.guest if verb[0] == "g" else self.pages
        if verb == "run":
            return f"run {self.rng.choice(['1', '5', '20', '60'])}" if self.likely(0.97) else "run rest"
        return self.unmap_line(verb, pages) if "unmap" in verb else self.map_line(verb, pages)

    def beginning(self):
        """Mostly the guest's first nodes are mapped, and a few pages, so that some walks end well."""
        order = self.rng.choice(["4k", "4k", "2m", "1g"])
        at = self.base * 4096 // ORDERS[order] * ORDERS[order]
        count = " 12" if order == "4k" else ""
        perm = self.rng.choice(["rw-u", "r--u", "rwxu", "rwxu", "--xu"])
        of_data = [self.map_line("gmap", self.guest) for _ in range(4)]
        of_guest = [self.map_line("vmap", self.pages) for _ in range(6)]
        return [f"gmap {at:x} {order} {perm}{count}"] + of_data + of_guest if self.likely(0.8) else []

    def script(self):
        lines = self.beginning() + [self.line() for _ in range(self.rng.choice([0, 3, 20, 80]))]
        return self.written(headed(self.rng, self.head(), lines))


class Harts(Drawn):
    """Some harts, of which each now and then takes what waits for it."""

    form = ["harts"]
    lengths = [0, 50, 400, 1000]

    def __init__(self, rng, without=()):
        super().__init__(rng, without)
        self.harts = rng.choice([1, 2, 2, 4, 8])
        self.spaces = rng.choice([1, 1, 2, 64])
        origins = [0, 0, 508, (1 << 18) - 4, NEGATIVE >> 12] + [(1 << 26) - 4] * rng.choice([0, 1])
        self.pages = [rng.choice(origins) + rng.randrange(3) for _ in range(rng.choice([1, 1, 2, 4]))]
        self.mapped = []

    def head(self):
        pick = self.rng.choice
        nodes = self.spaces + pick([2, 5, 20, 60, 16384 - self.spaces]) - (not self.likely(0.98))
        return (f"harts {self.harts} {pick([1, 2, 4, 16, 64])} {pick([1, 8, 600, 300000, 4194304])} {nodes} "
                f"{self.spaces} {pick([1, 1, 2, 3, 16, 2048])}")

    def hart(self):
        return self.rng.randrange(self.harts) if self.likely(0.97) else self.harts

    def space(self):
        return self.rng.choice([0, 0, self.spaces - 1]) if self.likely(0.97) else self.spaces

    def address(self, order):
        address = self.rng.choice(self.pages) * 4096 + self.rng.choice([0, 0, 1, 2]) * ORDERS[order]
        return f"{'0x' if self.likely(0.1) else ''}{self.aligned(address, order) % (1 << 64):x}"

    def leaf(self, verb):
        """A space, an address and an order: but for a map mostly those of a map that stands before."""
        if verb != "map" and self.mapped and self.likely(0.85):
            return self.rng.choice(self.mapped)
        order = self.rng.choice(["4k"] * 6 + ["2m"] * 3 + ["1g"])
        leaf = self.space(), self.address(order), order
        return self.mapped.append(leaf) or leaf if verb == "map" else leaf

    def change(self, verb):
        space, address, order = self.leaf(verb)
        count = self.rng.choice([""] * 6 + [f" {self.rng.randint(1, 6)}"])
        permission = self.rng.choice(PERMISSIONS)
        return [{"map": f"map {space} {address} {order} {permission}{count}",
                 "unmap": f"unmap {space} {address} {order}{count}",
                 "protect": f"protect {space} {address} {order} {permission}{count}",
                 "move": f"move {space} {address} {self.address(order)} {order}{count}"}[verb]]

    def lines(self):
        """One line, or some that belong together: all harts take, in any order."""
        verb = self.rng.choice(["map"] * 4 + ["unmap", "unmap", "protect", "move", "hart", "hart", "take", "takes"]
                               + ["run"] * 4 + ["space"])
        match verb:
            case "hart" | "take":
                return [f"{verb} {self.hart()}"]
            case "takes":
                order = self.rng.sample(range(self.harts), self.harts)
                return [f"take {hart}" for hart in order for _ in range(self.rng.choice([1, 1, 2]))]
            case "run":
                return [f"run {self.rng.choice(['1', '5', '20'])}" if self.likely(0.99) else "run rest"]
            case "space":
                return [f"space {self.space()}"]
            case _:
                return self.change(verb) + [f"take {hart}" for hart in range(self.harts) if self.likely(0.6)]

    def script(self):
        lines = [line for _ in range(self.rng.choice([0, 4])) for line in self.change("map")]
        lines += [line for _ in range(self.rng.choice([0, 20, 80, 150])) for line in self.lines()]
        return self.written(headed(self.rng, self.head(), lines))
