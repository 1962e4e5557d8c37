"""The trial of tables on a machine of QEMU."""
