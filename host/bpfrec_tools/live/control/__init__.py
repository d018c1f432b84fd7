"""Control of a recording that goes on: lines that change filters, and the answers to them."""
