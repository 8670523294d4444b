"""What `tools/build` and `tools/prebuilt` share: which crates the program is made of, and when."""
