"""Pictures: the graph of a net, memory maps of views, two agents on one scale, and who shares what under an image."""
