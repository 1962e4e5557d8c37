"""From a device tree to a description of its address spaces.

The modules, in the order in which a tree goes through them:

- ``blob``: whether a blob is whole
- ``tree``: reads a blob or a source into nodes with their properties
- ``cells``: the numbers of ``reg``, ``ranges`` and their like
- ``spans``: sets of addresses
- ``buses``: what each bus decodes: registers, windows, and what of a tree cannot be said
- ``net``: the nodes of a description, and how claims on a bus become its entries
- ``phandles``: references between nodes, and cycles of them
- ``units``: the tables of IOMMUs, and what of them and of message-signalled interrupts cannot be said
- ``masters``: the way of each master's own accesses
- ``interrupts``: the interrupt lines of devices, and the messages that an ITS makes interrupts of
- ``naming``: a readable name for each node
- ``platform``: the whole of one tree
- ``writing``: the text of a description
- ``mtree``: the flat views of QEMU, for machines without a device tree
- ``explain``: where a processor sees each device
"""
