"""The language server: what an editor asks of a document as it is typed."""
