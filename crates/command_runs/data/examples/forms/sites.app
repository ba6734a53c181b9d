forms.o 1 0000000000000004 gd gd-le x
forms.o 1 000000000000001f gd-ind gd-le x
forms.o 1 000000000000003a ld ld-le x
forms.o 1 0000000000000055 ld-ind ld-le x
forms.o 1 000000000000006d ie-mov ie-le x
forms.o 1 0000000000000082 ie-add ie-le x
forms.o 1 0000000000000090 desc-lea desc-le x
forms.o 1 0000000000000097 desc-call desc-le x
