"""A site at http://127.0.0.1:8081 that logs its users in at the provider of sample.toml, as its client `shop-client`, by
Authlib and Flask (Debian's python3-authlib, python3-requests and python3-flask). It needs `op-plus`, for proof keys:

    ./sso op-plus examples/sample.toml
    /usr/bin/python3 examples/authlib_site.py
"""
import base64

from authlib.integrations.flask_client import OAuth
from flask import Flask, redirect, session

SECRET = "shop-secret-shop-secret-shop-secret"
ISSUER = "http://127.0.0.1:8080"

site = Flask(__name__)
# Of this site alone: it seals the site's own cookies.
site.secret_key = base64.b64encode(open("/dev/urandom", "rb").read(32))
sso = OAuth(site).register(
    "sso",
    client_id="shop-client",
    client_secret=SECRET,
    server_metadata_url=f"{ISSUER}/.well-known/openid-configuration",
    client_kwargs={"scope": "openid profile", "code_challenge_method": "S256"},
    # ID Tokens are sealed under the secret, which the provider does not publish. Without this no key is found.
    jwks={"keys": [{"kty": "oct", "k": base64.urlsafe_b64encode(SECRET.encode()).rstrip(b"=").decode()}]},
)


@site.get("/")
def home():
    return f"user {session['user']}\n" if "user" in session else "nobody\n"


@site.get("/login")
def login():
    return sso.authorize_redirect("http://127.0.0.1:8081/cb")


@site.get("/cb")
def callback():
    # Verifies the ID Token, its nonce too.
    session["user"] = sso.authorize_access_token()["userinfo"]["sub"]
    return redirect("/")


if __name__ == "__main__":
    site.run("127.0.0.1", 8081)
