app.o 1 0000000000000004 gd gd-le own
app.o 1 000000000000001f gd gd-ie shared
