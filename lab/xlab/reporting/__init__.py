"""What `xlab report` is made of: the page's template, its figures, and where each comes from."""
