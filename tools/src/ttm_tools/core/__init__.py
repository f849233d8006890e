"""What all other packages use: errors, texts, files, threads and progress. It imports no other package."""
