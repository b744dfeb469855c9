"""What tries kuifje-confirm, the second implementation, which audit/coq extracts from Coq's proofs."""
