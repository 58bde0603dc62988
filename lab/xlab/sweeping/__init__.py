"""What `xlab sweep` is made of: designs from a template and lists, files of rows, the workflow, the gathered rows."""
