"""What all packages of the desk use: output, failures, options of the command line, the library and the program."""
