"""The public interface: networks, questions, scenarios and matrices, with frames going in and coming out."""
