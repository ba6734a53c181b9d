app.o 1 0000000000000000 ie-mov keep error
