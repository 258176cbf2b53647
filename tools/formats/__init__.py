"""The formats of guid for the tools in this folder: messages, records, output and pictures.

Nothing here is proved, and nothing that is proved rests on it.
"""
