"""The commands of scripts/unity-tool, one module a subject."""
