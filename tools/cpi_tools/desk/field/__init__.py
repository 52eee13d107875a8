"""Field notes: collectors' remarks about prices from their phones, and the desk's questions to them."""
