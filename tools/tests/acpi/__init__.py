"""What the tests of the reader of ACPI's tables use: tables made by hand, and those of QEMU's machines."""
