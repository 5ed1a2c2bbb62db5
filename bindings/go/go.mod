module vemkuorl.example/proved-argon2/argon2

go 1.19
