"""Stand-ins for the exceptions of botocore that tools/s3_client.py names."""


class BotoCoreError(Exception):
    pass


class EndpointConnectionError(BotoCoreError):
    pass


class ClientError(Exception):
    def __init__(self, response):
        super().__init__(response)
        self.response = response
