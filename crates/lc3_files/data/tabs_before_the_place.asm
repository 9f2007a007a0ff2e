	.orig	x3000
	LD	R0,	NOWHERE	; far
	.end
