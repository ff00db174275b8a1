module bulwynef.example/bulwynef

go 1.19
