"""What bin/bench does beside the proved programs: building and running them, and saying in words what they refuse."""
