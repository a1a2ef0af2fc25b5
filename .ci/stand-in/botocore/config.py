"""A stand-in for botocore's Config."""


class Config:
    def __init__(self, **said):
        self.said = said
