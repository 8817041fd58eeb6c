"""What `tools/fleet` is made of: trees of unit files in, questions to the proved program, and trees, differences and pictures out."""

VERSION = "1.0"
