"""The door of a public world: telnet and a web page, with and without TLS, and the world behind it on the loopback address."""
