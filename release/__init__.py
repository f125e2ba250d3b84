"""What ./wanda-release is made of: pages, programs, the file PROVED, and the archive."""
