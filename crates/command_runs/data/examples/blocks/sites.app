app.o 1 000000000000000b gd gd-le own
app.o 1 0000000000000024 gd gd-ie shared
