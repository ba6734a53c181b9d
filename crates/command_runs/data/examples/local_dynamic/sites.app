pair.o 1 0000000000000001 ld ld-le second
pair.o 1 0000000000000026 ld ld-le first
