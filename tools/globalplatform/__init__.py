"""A card manager of GlobalPlatform in front of a card, for tools/reader --globalplatform."""
