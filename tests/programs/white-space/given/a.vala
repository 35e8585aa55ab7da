	void
main(
)
{print
("x")
;}

