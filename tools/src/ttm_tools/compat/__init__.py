"""Other interfaces to the same computations: the functions of version 2, and the names of r5py."""
