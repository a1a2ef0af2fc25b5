"""A stand-in for the exception that botocore raises when it cannot read a reply."""


class ResponseParserError(Exception):
    pass
