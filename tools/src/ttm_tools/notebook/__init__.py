"""Pages of the library: a matrix as a file to send, and a network to explore. They look alike in a notebook."""
