.external 5
