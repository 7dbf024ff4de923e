module walgroud.example/examples

go 1.18

require walgroud.example/sipua v0.4.0

replace walgroud.example/sipua => ../../bindings/go
