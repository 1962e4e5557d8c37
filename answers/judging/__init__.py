"""The judge: plain searches over small nets, with no code of the program."""
