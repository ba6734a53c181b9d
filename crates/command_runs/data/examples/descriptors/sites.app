app.o 1 0000000000000004 desc-lea desc-le own
app.o 1 000000000000000b desc-call desc-le own
app.o 1 0000000000000019 desc-lea desc-ie shared
app.o 1 0000000000000020 desc-call desc-ie shared
