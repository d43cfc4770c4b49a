"""Where the Redis of real workers is: at a socket, or at a port of 127.0.0.1."""


def url_of(place, database):
    """Celery's URL for a database of the Redis at the path of a socket, or at a port."""
    if place.isdigit():
        return f"redis://127.0.0.1:{place}/{database}"
    return f"redis+socket://{place}?virtual_host={database}"


def client_of(url):
    """A client of the Redis that Celery's URL names."""
    import redis
    return redis.Redis.from_url(
        url.replace("redis+socket:", "unix:").replace("virtual_host=", "db="))
