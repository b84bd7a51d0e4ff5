"""Chromium without a window, and keys typed in it."""
import glob
import os
import shutil
import time

from laboratory import WAIT

PATIENCE = 3 * WAIT  # seconds for a page, beside other work of the machine


class Browser:
    """Chromium without a window, whose downloads go to a folder."""

    def __init__(self, folder, pictures):
        from selenium import webdriver
        from selenium.webdriver.chrome.service import Service
        options = webdriver.ChromeOptions()
        for word in ('--headless=new', '--no-sandbox', '--disable-gpu', '--disable-dev-shm-usage', '--window-size=1400,1000'):
            options.add_argument(word)
        options.binary_location = shutil.which('chromium')
        options.set_capability('goog:loggingPrefs', {'browser': 'ALL'})
        self.folder, self.pictures = folder, pictures
        self.driver = webdriver.Chrome(service=Service(shutil.which('chromedriver')), options=options)
        self.driver.execute_cdp_cmd('Browser.setDownloadBehavior', {'behavior': 'allow', 'downloadPath': folder})

    def look(self, scheme='light', width=None):
        """Light or dark, and as wide as that."""
        self.driver.execute_cdp_cmd('Emulation.setEmulatedMedia', {'features': [{'name': 'prefers-color-scheme', 'value': scheme}]})
        if width:
            self.driver.execute_cdp_cmd('Emulation.setDeviceMetricsOverride', {'width': width, 'height': 844, 'deviceScaleFactor': 1, 'mobile': True})
        else:
            self.driver.execute_cdp_cmd('Emulation.clearDeviceMetricsOverride', {})

    def keep(self, name):
        if self.pictures:
            time.sleep(0.8)
            self.driver.save_screenshot(os.path.join(self.pictures, f'{name}.png'))

    def run(self, code, *words):
        return self.driver.execute_script(code, *words)

    def wait(self, code, *words):
        """Whether something becomes true."""
        until = time.monotonic() + PATIENCE
        while time.monotonic() < until:
            if self.run(f'return {code}', *words):
                return True
            time.sleep(0.05)
        return False

    def open(self, address):
        self.driver.get('about:blank')
        self.driver.get(address)
        return self.wait('typeof state === "object" && state.view !== null && !document.getElementById("picture").classList.contains("stale")')

    def type(self, text):
        """Puts a text into the editor as somebody does who types, and waits for what comes of it."""
        before = self.run('return state.asked')
        self.run('const area = get("text"); area.value = arguments[0]; area.dispatchEvent(new Event("input"))', text)
        return self.wait('state.asked > arguments[0] && state.answered === state.asked', before)

    def downloaded(self, what, name):
        """The bytes that a button saves."""
        path = os.path.join(self.folder, name)
        if os.path.exists(path):
            os.remove(path)
        self.run('document.querySelector(`[data-save=${arguments[0]}]`).click()', what)
        until = time.monotonic() + PATIENCE
        while time.monotonic() < until:
            if os.path.exists(path) and not glob.glob(os.path.join(self.folder, '*.crdownload')):
                with open(path, 'rb') as file:
                    return file.read()
            time.sleep(0.1)
        return None

    def complaints(self):
        return [line['message'] for line in self.driver.get_log('browser') if line['level'] in ('SEVERE', 'WARNING')]


def keys(browser, *names):
    from selenium.webdriver.common.action_chains import ActionChains
    from selenium.webdriver.common.keys import Keys
    for name in names:
        ActionChains(browser.driver).send_keys(getattr(Keys, name)).perform()
