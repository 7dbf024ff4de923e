module walgroud.example/sipua

go 1.18
