"""What `compare/overlayfs` and `compare/image` are made of.

`system` has the system calls, `calls` the file operations and lookups made by them, `layers` the snapshots as
mounts, `program` the program's side, `declared` the differences that are wanted and `cases` a case of each of
them. `comparison` takes a script through both sides, `sequences` makes scripts from a seed, and `shortest` cuts
a script with a difference down.

`image` is `compare/image`. `archive` makes an image of this machine's files, and `moves` small ones; `unpack` and
`containerd` unpack an image's layers.
"""
