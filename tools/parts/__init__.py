"""What the scripts of this repository share. say.sh is sourced by those in bash."""
