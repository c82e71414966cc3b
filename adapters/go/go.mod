module sigverify

go 1.19
