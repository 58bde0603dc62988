"""What `xlab explain` says of each kind of file, and of a run that ended well."""
