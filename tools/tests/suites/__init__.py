"""The suites of others: Linux's own address.c over whole trees, its unit tests of addresses, those of U-Boot, and dtc's
trees."""
