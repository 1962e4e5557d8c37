"""Tables in the formats of real IOMMUs, packed from what agents see, and read back."""
