"""Texts with a fault, and the fault that docs/FORMATS.md says of each."""

from runs import ALL, A, array, row

CONFIGURATIONS = [
    ("", "row 0 key 0 rule 1"),
    ("row = 3", "row 0 key 0 rule 2"),
    ("row = []", "row 0 key 0 rule 3"),
    ("row = [3]", "row 0 key 0 rule 2"),
    ("extra = 1\n" + A, "row 0 key 0 rule 4"),
    (row("A"), "row 1 key 1 rule 3"),
    (row("a" * 17), "row 1 key 1 rule 3"),
    (row(""), "row 1 key 1 rule 3"),
    (A + A, "row 2 key 1 rule 5"),
    ("".join(row(f"r{i}") for i in range(17)), "row 0 key 0 rule 3"),
    (A.replace('"sv39"', '"sv40"'), "row 1 key 2 rule 3"),
    (A.replace('"sv39"', "39"), "row 1 key 2 rule 2"),
    (row(frames=0), "row 1 key 3 rule 3"),
    (row(frames=4194305), "row 1 key 3 rule 3"),
    (row(frames=-9223372036854775808), "row 1 key 3 rule 3"),
    (row(frames=1.5), "row 1 key 3 rule 2"),
    (row(spaces=65), "row 1 key 4 rule 3"),
    (A.replace('"radix"', '"tree"'), "row 1 key 5 rule 3"),
    (row(purge="none"), "row 1 key 6 rule 3"),
    (row(spaces=2, table_frames=1), "row 1 key 7 rule 3"),
    (row(table_frames=16385), "row 1 key 7 rule 3"),
    (row(walk_caches=[4]), "row 1 key 8 rule 3"),
    (row(walk_caches=[4, 3]), "row 1 key 8 rule 3"),
    (row(walk_caches=[4, "4"]), "row 1 key 8 rule 2"),
    (row(table="hashed", buckets=0), "row 1 key 9 rule 3"),
    (row(table="hashed", entries=1048577), "row 1 key 10 rule 3"),
    (row(table="clustered", blocks=131073), "row 1 key 11 rule 3"),
    (row(table="cuckoo", ways=5), "row 1 key 12 rule 3"),
    (row(table="cuckoo", start_bits=19), "row 1 key 13 rule 3"),
    (row(table="cuckoo", cap_bits=1), "row 1 key 14 rule 3"),
    (row(table="cuckoo", threshold=101), "row 1 key 15 rule 3"),
    (row(table="cuckoo", kick_limit=65), "row 1 key 16 rule 3"),
    (row(table="cuckoo", migrate=0), "row 1 key 17 rule 3"),
    (row(table="cuckoo", sections_2m=262145), "row 1 key 18 rule 3"),
    (row(table="cuckoo", sections_1g=4097), "row 1 key 19 rule 3"),
    (row(table="range", ranges=65537), "row 1 key 20 rule 3"),
    (row(table="range", range_tlb=5), "row 1 key 21 rule 3"),
    (row(tlb=[array(2, 1, 4, *ALL)]), "row 1 key 22 rule 5"),
    (row(tlb=[array(1, 16384, 4, *ALL)]), "row 1 key 22 rule 3"),
    (row(tlb=[array(1, 1, 4, "4k"), array(1, 1, 4, "4k")]), "row 1 key 22 rule 5"),
    (row(tlb=[array(1, 1, 4, *ALL)] * 7), "row 1 key 22 rule 3"),
    (row(tlb=[array(1, 1, 4, *ALL) | {"ways": 1}]), "row 1 key 22 rule 4"),
    (row(ways=3), "row 1 key 23 rule 4"),
]
NOT_TOML = [b"\xff", b"\0", b"[[row]", b"[[row]]\nname = \"a\nmode", A + "frames = 1\n", "a" * 65536,
            "row = " + "[" * 65000, "row = " + "{a=" * 21000, 'x = """' + '"\\n' * 20000]
# texts that are TOML, and deeper or longer than a reader may wish; each has a fault in any case
DEEP = ["row = " + "[" * 32000 + "]" * 32000, "row = " + "{a=" * 12000 + "1" + "}" * 12000, "a" + ".a" * 32000 + " = 1",
        "[a" + ".a" * 32000 + "]", "[[row]]\n" * 8000, "".join(f"a.a{i}=1\n" for i in range(6000)),
        "".join(f"[a.b{i}]\n" for i in range(6000)), "row = [" + "1," * 32000 + "]"]

SCRIPT_LINES = [
    ("jump 0", 1), ("fence nowhere", 1), ("MAP 0 0 4k r--u", 1), ("\0", 1), ("\xff", 1), ("map\r0", 1),
    ("fence", 2), ("map 0 0 4k", 2), ("space", 2), ("run", 2), ("run 1 1", 2), ("fence all 0", 2),
    ("map 0 0 4k r--u 0", 3), ("map 65536 0 4k r--u", 3), ("map 0 -1 4k r--u", 3), ("map 0 0x 4k r--u", 3),
    ("map 0 11112222333344445 4k r--u", 3), ("map 0 0 4k r--u 1048577", 3), ("map 0 0 4k r--u 01", 3),
    ("run 4294967296", 3), ("run 0", 3), ("run all", 3), ("demand 0 0 35184372088833 4k r--u", 3),
    ("space 18446744073709551616", 3), ("map x 0 8k r--u", 3), ("map 0 0 8k -w-u", 4), ("map 0 0 4K r--u", 4),
    ("map 0 0 4k -w-u", 5), ("map 0 0 4k ---u", 5), ("map 0 0 4k r--", 5), ("map 0 0 4k r--ux", 5),
    ("map 0 fffffffffffff000 4k r--u 2", 6), ("move 0 0 fffffffffffff000 4k 2", 6),
    ("unmap 0 ffffffffffffffff 1g", 6), ("demand 0 1000 512 2m r--u", 6), ("demand 0 0 511 2m r--u", 6),
    ("demand 0 fffffffffffff000 2 4k r--u", 6), ("demand 0 fffffffffffff000 35184372088832 4k r--u", 6),
]
# heads of the forms, with lines that follow them; a head with a fault is refused at line 1
HEADS = {"nested": "guest 100 16 64 64 0\n", "harts": "harts 2 4 64 16 2 1\n"}
FORM_HEADS = {
    "nested": [
        ("", 8), ("# what\n\n \t\n", 8), ("gmap 0 4k rwxu", 8), ("run rest", 8), ("harts 2 4 64 16 2 1", 1),
        ("guest", 2), ("guest 100 16 64 64", 2), ("guest 100 16 64 64 0 0", 2), ("guest x 16 64 64 0", 3),
        ("guest 11112222333344445 16 64 64 0", 3), ("guest 100 0 64 64 0", 3), ("guest 100 16385 64 64 0", 3),
        ("guest 100 16 0 64 0", 3), ("guest 100 16 4194305 64 0", 3), ("guest 100 16 64 3 0", 3),
        ("guest 100 16 64 16385 0", 3), ("guest 100 16 64 64 3", 3), ("guest 100 16 64 64 00", 3),
        ("guest 100 16 64 64 128", 3), ("guest 100 0x10 64 64 0", 3), ("guest 1ffffff1 16 64 64 0", 6),
        ("guest ffffffffffffffff 1 64 64 0", 6),
    ],
    "harts": [
        ("", 8), ("# what\n\n \t\n", 8), ("hart 0", 8), ("run rest", 8), ("guest 100 16 64 64 0", 1), ("harts", 2),
        ("harts 2 4 64 16 2", 2), ("harts 2 4 64 16 2 1 1", 2), ("harts 0 4 64 16 2 1", 3), ("harts 9 4 64 16 2 1", 3),
        ("harts 2 0 64 16 2 1", 3), ("harts 2 65 64 16 2 1", 3), ("harts 2 4 0 16 2 1", 3),
        ("harts 2 4 4194305 16 2 1", 3), ("harts 2 4 64 1 2 1", 3), ("harts 2 4 64 16385 2 1", 3),
        ("harts 2 4 64 16 0 1", 3), ("harts 2 4 64 65 65 1", 3), ("harts 2 4 64 16 2 0", 3),
        ("harts 2 4 64 16 2 2049", 3), ("harts 02 4 64 16 2 1", 3), ("harts 2 4 64 x 2 1", 3),
    ],
}
FORM_LINES = {
    "nested": [
        ("jump", 1), ("map 0 0 4k r--u", 1), ("hart 0", 1), ("GMAP 0 4k rwxu", 1), ("gmap\r0", 1), ("\0", 1), ("\xff", 1),
        ("guest 100 16 64 64 0", 8), ("guest", 8), ("gmap", 2), ("gmap 0 4k", 2), ("gmap 0 4k rwxu 1 1", 2),
        ("gunmap 0", 2), ("vmap 0 4k 0", 2), ("vmap 0 4k 0 rwxu 1 1", 2), ("vunmap 0 4k 1 1", 2), ("run", 2),
        ("run 1 1", 2), ("gmap -1 4k rwxu", 3), ("gmap 0x 4k rwxu", 3), ("gmap 0 4k rwxu 0", 3), ("gmap x 8k -w-u", 3),
        ("vmap 0 4k 11112222333344445 rwxu", 3), ("vmap 0 4k 0 rwxu 1048577", 3), ("vunmap 0 4k 01", 3),
        ("run 4294967296", 3), ("run 0", 3), ("run all", 3), ("gmap 0 8k -w-u", 4), ("vmap 0 4K x rwxu", 4),
        ("gunmap 0 4kb", 4), ("gmap 0 4k rwx-", 5), ("gmap 0 4k r--- 0", 5), ("gmap 0 4k -w-u", 5),
        ("vmap 0 4k 0 ---u", 5), ("vmap 0 4k 0 rwx", 5), ("gmap fffffffffffff000 4k rwx- 2", 5),
        ("gmap fffffffffffff000 4k rwxu 2", 6), ("gunmap ffffffffffffffff 1g", 6), ("vunmap fffffffffffff001 4k", 6),
        ("vmap 0 4k fffffffffffff000 rwxu 2", 6), ("vmap fffffffffffff000 4k 0 rwxu 2", 6),
    ],
    "harts": [
        ("jump", 1), ("fence all", 1), ("demand 0 0 1 4k rwxu", 1), ("gmap 0 4k rwxu", 1), ("Hart 0", 1),
        ("harts 2 4 64 16 2 1", 8), ("harts", 8), ("hart", 2), ("take", 2), ("hart 0 0", 2), ("map 0 0 4k", 2),
        ("space", 2), ("run", 2), ("hart 65536", 3), ("take 65536", 3), ("hart 00", 3), ("take -1", 3), ("hart 0x0", 3),
        ("take all", 3), ("map 65536 0 4k r--u", 3), ("move 0 0 0 4k 0", 3), ("run 0", 3), ("space x", 3),
        ("map 0 0 8k r--u", 4), ("protect 0 0 4k -w-u", 5), ("map 0 fffffffffffff000 4k r--u 2", 6),
        ("move 0 0 fffffffffffff000 4k 2", 6), ("unmap 0 ffffffffffffffff 1g", 6),
    ],
}
TRACE_LINES = [
    ("Q 1,1", 1), ("L", 2), (" L 10", 2), (" L zz,4", 2), (" L 10 ,1", 2), (" L,1", 2), ("I0,1", 2), (" L 0x10,1", 2),
    (" L 11112222333344445,1", 2), (" L 0,", 3), (" L 0,65537", 3), (" L 0,0000001", 3), (" L 0, 1", 3), (" L 0,-1", 3),
    (" L 0,1 x", 4), (" L 0,1,1", 4), (" L 0,1\r \r", 4),
    (" L ffffffffffffffff,2", 5), (" L ffffffffffff0001,65536", 5),
    (" " * 257, 6), (" L 0,1" + " " * 251, 6), ("\0" * 300, 6), ("\0", 1), ("\xff", 1), ("\ufeff L 0,1", 1),
]
