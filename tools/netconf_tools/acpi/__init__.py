"""From the tables of ACPI to a description, for machines without a device tree.

The modules, in the order in which a machine goes through them:

- ``tables``: the tables of a folder, or of the text of ``acpidump``
- ``fields``: numbers in a table, and records that follow one another
- ``platform_tables``: MADT, SRAT and MCFG: processors, controllers, memory, configuration addresses
- ``vtd``: DMAR, the IOMMUs of Intel
- ``amd``: IVRS, the IOMMUs of AMD
- ``iort``: IORT, the SMMUs of Arm
- ``rimt``: RIMT, the IOMMUs of RISC-V
- ``translation``: what the three have in common: which requesters of PCI an IOMMU translates, and reserved memory
- ``pci``: the functions of a machine, by ``lspci -vmmn`` or the running Linux
- ``iomem``: the memory of a machine, by ``/proc/iomem``
- ``machine``: the whole, as nodes of a description
"""
