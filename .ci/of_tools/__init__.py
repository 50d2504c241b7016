"""What `.ci/tools` tries, a module for each tool or family of tools: its TRIED are functions that take the trials."""
