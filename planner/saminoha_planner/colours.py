"""The colours of the letters, the same in pictures and on the page: they remain apart for
colour-blind eyes (Okabe and Ito).
"""

COLOURS = dict(
    zip(
        "ABCDEFGHIJ",
        (
            "#0072B2",
            "#D55E00",
            "#009E73",
            "#CC79A7",
            "#8A6A00",
            "#56B4E9",
            "#000000",
            "#7A3E9D",
            "#7F1D1D",
            "#4D7C0F",
        ),
    )
)
