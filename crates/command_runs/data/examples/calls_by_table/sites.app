app.o 1 0000000000000004 gd-ind gd-le own
app.o 1 0000000000000023 ld-ind ld-le first
app.o 1 000000000000004a ld-ind ld-le second
