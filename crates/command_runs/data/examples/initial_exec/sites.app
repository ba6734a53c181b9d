app.o 1 0000000000000000 ie-mov ie-le own
app.o 1 000000000000000b ie-mov keep shared
place.o 2 0000000000000009 ie-add ie-le own
