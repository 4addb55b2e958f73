#!/usr/bin/python3
"""A stock client, Selenium's package for Python (Debian's python3-selenium), drives `webdriverd listen`: it opens a
session, finds elements on w.site, reads a text and tag names, and quits.

    examples/client.py [PORT]
"""
import os
import subprocess
import sys

from selenium import webdriver
from selenium.common.exceptions import NoSuchElementException
from selenium.webdriver.common.by import By

HERE = os.path.dirname(os.path.abspath(__file__))


def main():
    port = sys.argv[1] if len(sys.argv) > 1 else "4444"
    words = [os.path.join(HERE, "..", "bin", "webdriverd"), "listen", "--port", port, "--connections", "1"]
    server = subprocess.Popen([*words, "--name", "chrome", "w.site"], cwd=HERE, stdout=subprocess.PIPE, text=True)
    print(server.stdout.readline(), end="")
    driver = webdriver.Remote(f"http://127.0.0.1:{port}", options=webdriver.ChromeOptions())
    print(f"session {driver.session_id} at {driver.current_url}")
    print(f"its p says {driver.find_element(By.ID, 'a1b').text!r}")
    print("its buttons:", *(button.tag_name for button in driver.find_elements(By.CSS_SELECTOR, "body > button")))
    print("in the shadow root:", driver.find_element(By.ID, "under").tag_name, "has a", deep(driver))
    try:
        driver.find_element(By.ID, "none")
    except NoSuchElementException as error:
        print(f"#none: {error.msg}")
    driver.quit()
    print(f"the server ended with status {server.wait()}")


def deep(driver):
    """The tag in the shadow root. The client's own `shadow_root` asks for a browser of a later version."""
    host = driver.find_element(By.ID, "under")
    root = driver.execute("getShadowRoot", {"id": host.id})["value"]
    return root.find_element(By.CSS_SELECTOR, "#deep").tag_name


main()
