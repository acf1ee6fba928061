"""What the tools of `contrib` share: stores and their bytes, worlds as lines of JSON, links to a server, and words of MUF."""
