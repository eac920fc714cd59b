"""Makes packages of a proved program, its tools and its pages. docs/INSTALL.md tells what they hold."""
